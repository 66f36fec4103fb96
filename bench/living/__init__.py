"""A cluster's life in simulated time, for bench/cluster and tests/lived.py.

- lives: what happens from outside, drawn from a seed or read from a trace; outside: that as operations that coordinators are told;
- followers, members: a coordinator in a process, the packets that it sends, and what it knows of placements;
- grounds: what really runs where, and the bandwidth that it asks for;
- simulation: coordinators that live through a life; causes: why they preempted tasks, or started them in vain;
- blind: a policy without a network that lives through the same;
- judging: other solvers beside a coordinator's; figures: what is measured of a life; plots, page: how it is shown.
"""
