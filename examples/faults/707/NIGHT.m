CLEAN(W) ; clears a ward's notes at night, in one job at a time
 LOCK +^NIGHT:0 ELSE  QUIT
 LOCK +^WARD(W) KILL ^WARD(W,"notes") LOCK -^WARD(W)
 LOCK -^NIGHT QUIT
