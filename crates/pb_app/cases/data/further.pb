META
key;value;note
description;A town's budget;old
Country;Poland
budget;50
unit;Lipowo
BUDGET;100
vote_type;approval
DESCRIPTION;another
num_projects;7
rule;greedy
comment;#1: old
currency; PLN 
;no key
empty;
PROJECTS
project_id;Cost;name;category;VOTES;latitude;Category;
a;30;Bench;sport;9;50,1;x;y
b;53.67;;"green; blue"
VOTES
voter_id;age;vote;sex
v1;30;a;F
v2; 41 ;a,b;
v3;;b
