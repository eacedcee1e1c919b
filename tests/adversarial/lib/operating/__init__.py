"""What an operator tells a server and is told of it, where its records say a client was, and who may ask it."""
