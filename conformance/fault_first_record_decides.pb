META
key;value

budget;100
vote_type;approval
PROJECTS
project_id;cost
;;

a;0
a;-1
VOTES
voter_id
