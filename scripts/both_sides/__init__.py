"""The rules of both sides of a session, which tcpclkit-check-session judges.

  facts    what the program says of a recording: messages, and the rules that one side breaks
  sides    what is kept of each side
  order    in which order the messages of both sides are taken
  sending  the rules of segments
  pairing  which XFER_ACK can answer which segment
  bundles  whether a bundle can be fragmented
  answers  the rules of XFER_ACK and XFER_REFUSE
  tails    whether bytes may be the end of a message
  endings  what is judged when both recordings were read
  timed    the rules that need times
  captured the rules that need a capture of the connection
  judging  the whole: the lines of both sides
"""
