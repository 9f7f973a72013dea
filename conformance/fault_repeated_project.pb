META
key;value
budget;100
vote_type;approval
PROJECTS
project_id;cost
a;30
a ;60
VOTES
voter_id;vote
v1;a
v2;a,b
v3;b
