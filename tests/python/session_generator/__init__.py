"""Random sessions of two nodes, written from RFC 9174 alone.

`messages` spells messages and bundles. A node is in `nodes`, with its halves in `receiver` and `sender`,
and `talks` has a session of two. `openings` has sessions that end before or in their negotiation.
`freedoms` says what a session makes of the freedom that the RFC leaves. `cuts` leaves out parts of
recordings, `mutations` breaks one rule of a session, and `judge` asks scripts/both_sides about
recordings: tests/gate/random-sessions uses these.

`stack` is a TCP, and `captures` has sessions over it, for tests/gate/random-captures. `reports` is for
both scripts.
"""
