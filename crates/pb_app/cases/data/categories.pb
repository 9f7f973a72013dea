META
key;value
budget;100
currency;USD
vote_type;approval
Currency; EUR 
PROJECTS
project_id;cost;Category;category
a;30;<b>parks</b>;x
b;60; roads,paths ;x
c;20
d;25;<b>parks</b>;x
VOTES
voter_id;vote
v1;a,c
v2;a,b,d
v3;b
