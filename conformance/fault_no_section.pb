META
key;value
budget;100
vote_type;approval
PROJECTS
project_id;cost
a;30
b;60
