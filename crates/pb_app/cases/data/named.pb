META
key;value
budget;80
vote_type;approval
PROJECTS
project_id;cost;name
"a;1";20;"Bench; ""old"""
"b""2";5;"two
lines"
c;30;Well
VOTES
voter_id;vote
"v;1";"a;1,b""2"
"v""2";"a;1"
"v
3";c
v4;
