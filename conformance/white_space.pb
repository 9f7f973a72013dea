 META 
key;value
budget; 10 
vote_type; approval
PROJECTS
project_id ; cost
 a;　4
b	;6
VOTES
voter_id;vote
v1 ; a , ,a,
 v2;,b
