"""A model of `tcpclkit` in plain python, by docs/FORMATS.md and the RFCs that it names.

It is written from those documents alone, and shares no code and no definition with the program. It
reads whole byte strings, and nothing piece by piece. `listing`, `unpacking` and `packing` of
`tools`, `block_listing` of `blocks` and `checking` of `checking` take an input and options, and
return (output, report, status).

    wire            the reading of a recorded stream
    bundle          the judgement of a bundle
    block_data      what the data of a block says
    check           the two check values
    texts           the words and lines
    tools           `list`, `unpack` and `pack`, and the walk over transfers
    blocks          `blocks`
    table           the tools that the program has
    names           the syntax of node IDs and endpoint IDs
    bundle_facts    what the rules of bundles share
    rules           the rules of `check`, which are in `message_rules`, `transfer_rules`,
                    `bundle_rules` and `security_rules`
    checking        `check`
"""
