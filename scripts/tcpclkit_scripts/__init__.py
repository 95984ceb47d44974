"""What the scripts of tcpclkit share. It is no program, and its names may change."""
