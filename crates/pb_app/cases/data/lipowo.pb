META
key;value
description;District budget of Lipowo, Riverside
country;Poland
unit;Lipowo
subunit;Riverside
instance;2024
num_projects;6
num_votes;8
budget;150000
vote_type;approval
rule;equalshares
date_begin;03.06.2024
date_end;17.06.2024
min_length;1
max_length;3
PROJECTS
project_id;cost;votes;name;category
LR-01;48000;5;Trees along Mill Street;environment
LR-02;25500,50;4;Benches at the bus stops;public space
LR-03;61200;3;"Playground ""Otter""";sport
LR-04;12000;1;Reading hours;culture
LR-05;97000;2;Lights in Lower Lane;roads
LR-06;8000;3;First aid course;health
VOTES
voter_id;age;sex;vote;voting_method
1001;34;F;LR-01,LR-03,LR-06;internet
1002;61;M;LR-02;paper
1003;19;F;LR-01,LR-05;internet
1004;45;M;LR-03,LR-04;internet
1005;72;F;LR-01,LR-02,LR-06;paper
1006;28;M;LR-05;internet
1007;53;F;LR-01,LR-02,LR-03;paper
1008;39;M;LR-01,LR-02,LR-06;internet
