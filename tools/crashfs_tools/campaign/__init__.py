"""Records and checks a session with one seed after another, and keeps what is new."""
