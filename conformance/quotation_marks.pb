META
key;value
budget;"10"
vote_type;approval
PROJECTS
project_id;cost
"a;1";4
"b ""B""";5
c"d;1
VOTES
voter_id;vote
v1;"a;1,b ""B"""
"v;2";c"d
