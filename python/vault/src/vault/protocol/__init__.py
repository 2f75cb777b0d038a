"""What is said between the client and the server: words, replies, addresses, connections."""
