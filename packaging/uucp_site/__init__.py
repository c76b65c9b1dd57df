"""What `packaging/uucico` is made of: Taylor UUCP's configuration, lines, chats, calls and answers."""
