META
key;value
description;Participatory budget of Niwokade, a small city
budget;60000
vote_type;approval
PROJECTS
project_id;cost;name
1;18000;Playground at the river
2;9500;Shade trees for the market square
3;24000;New roof for the village library
4;6200;Bicycle stands at four schools
5;31000;Footbridge over the mill stream
6;4800;Benches & tables in the park
7;12500;"Open-air cinema; five evenings"
8;7600;Repair café
VOTES
voter_id;age;vote
v01;34;1,2,6
v02;61;2,3,6
v03;25;4,8
v04;47;1,4
v05;19;7,8
v06;72;2,3,6
v07;38;1,2,4
v08;55;5
v09;43;1,6
v10;29;4,7,8
v11;66;2,3
v12;31;1,4,6
v13;50;5,2
v14;22;7
v15;36;1,2,8
v16;41;3,6
v17;58;1
v18;27;4,8
v19;45;5
v20;33;2,4,6
