CENSUS(W) ; prints who lies in a ward, to a file
 NEW B
 DO OPEN^DEV("census.txt") ELSE  QUIT
 LOCK +^WARD(W)
 SET B="" FOR  SET B=$ORDER(^WARD(W,B)) QUIT:B=""  WRITE B," ",^WARD(W,B),!
 LOCK -^WARD(W)
 DO CLOSE^DEV("census.txt")
 QUIT
