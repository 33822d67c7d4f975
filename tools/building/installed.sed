# Makes of a page of the repository one of an installed program: its commands, and below its title what its paths are.
s#PYTHONPATH=python ##g
s#python3 -m marple\.(report|parts)([^a-z]|$)#marple-\1\2#g
s#(\./)?examples/cookbook/(quads|sql|draw)([^a-z.-]|$)#marple-\2\3#g
s#(\./)?tools/captures/(trace-from-captures?)#marple-\2#g
s#(^|[^.])\./(marple|explain)([^a-z]|$)#\1<\2>\3#g
s#<marple>#marple#g
s#<explain>#marple-explain#g
1a\
\
*This copy is of an installed marple: the commands are those of its programs. They run as they stand in a folder that has a link\
to the examples: `ln -s /usr/share/doc/marple/examples .`, or the same below another prefix. Other scripts, as `./build`, and\
the folders `crates`, `tests`, `bench`, `python` and `tools` are in the repository.*
