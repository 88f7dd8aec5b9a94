"""What scripts/measure/speed is made of: a module for each of its words, and what these share.

Its programs (crate.c, crate.rs and library.rs) are asked by the same words and answer by the same lines:

    PROGRAM time INPUT ..                  STEP LEAST MIDDLE ANSWER
    PROGRAM once STEP CALLS FILE ..        peak KILOBYTES

A line of `time` is a step, the least and the middle one of the times of a call, in nanoseconds, and what the step answered, or,
of library.rs, on how many manifests it was taken. What a step makes is dropped within its time. `once` calls a step so often
(`nothing` is a step too), and prints the most memory that its process had.
"""
