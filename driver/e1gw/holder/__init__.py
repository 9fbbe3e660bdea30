"""Holds a trunk: its line, its circuits' sockets, and the program on them, which is started again when it ends. It
shows nothing and reads no log: that is the watcher's.

If a holder dies its program ends with it, behind what it has in hand; the next one goes on from the log. What that one
needs is kept by systemd: the line first, the sockets, the program, what was tried with it, and the log's files. So
nothing is ever adopted, and the folder may vanish.

A turn (`holder.py`) looks at what is there and does what is due. What follows: a program that starts or has ended,
`lifecycle.py` by `decisions.py`; a reload, `reloading.py`; a line that cannot be opened, `line.py`; a role of two
machines, `roles.py`.

FOLDER is WITHIN/NAME-UID. Others know of a trunk by

  WITHIN/NAME-UID.lock  the holder has it locked, and is named in it
  FOLDER/holder         what is held, as JSON (`holder_state.py`); the next holder has the role that is there
  FOLDER/hold           a socket, which takes a word on a line: reload, reload force, quit, take, take NUMBER (of the
                        next packet, of a line that has packets), release. A line answers: `WORD: done`,
                        `WORD: refused: WHY` or `unknown`
  FOLDER/said           what the program of now says
  FOLDER/config, tried  the configuration that runs, in which names are addresses; what was tried, as JSON
  FOLDER/program, tell, log/    the program's sockets and its log
  FOLDER/fed/           while it stands by: what is known of the trunk, a log, which becomes that of the trunk"""
