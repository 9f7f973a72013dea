META
key;value
budget;100
vote_type;approval
PROJECTS
project_id;cost;name
a;40;Garden
c;36;
b;35;Bridge <new>
VOTES
voter_id;vote
v1;a,b
v2;a,c
