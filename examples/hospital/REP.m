BEDS(W) ; lists who lies where; it only reads
 NEW B
 LOCK +^WARD(W):5 ELSE  WRITE "the ward is in use",! QUIT
 KILL ^TMP($JOB)
 SET B=""
 FOR  SET B=$ORDER(^WARD(W,"bed",B)) QUIT:B=""  SET ^TMP($JOB,B)=^WARD(W,"bed",B)
 LOCK -^WARD(W)
 FOR  SET B=$ORDER(^TMP($JOB,B)) QUIT:B=""  WRITE B," ",^TMP($JOB,B),!
 KILL ^TMP($JOB)
 QUIT
