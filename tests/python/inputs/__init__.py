"""The inputs of tests/gate/model-sweep, in groups.

A group is a name, and a call that yields its inputs. An input is (bytes, runs), and a run is a tool
with its options.

    spelling   messages and bundles as bytes, with one field changed
    prefixes   every prefix of the examples
    lengths    each length field of a stream, and each head of a bundle, at hostile values
    block_data the data of blocks, with each head changed and cut at each byte
    limits     counts and sizes at their limits, and past them
    rules      what the rules of messages depend on, at its limits and in each combination
    bundle_rules
               the same of the rules of bundles
    binding    whom the rules of bundles bind: nodes and their IDs, and unknown parts
    worked     the runs of tests/python/rows
    randoms    random streams and bundles
"""
