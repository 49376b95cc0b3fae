"""The coverage: what can occur (`possible`, `situations`, `no_calls`), what did (`followed` and the
modules of each kind of call, all in `counts`), and the tables of both (`report`)."""
