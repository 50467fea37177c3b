MOVE(ID,W) ; notes a patient's new ward, and counts the move in a job of its own
 LOCK +^PAT(ID) SET ^PAT(ID,"ward")=W LOCK -^PAT(ID)
 JOB COUNT(W) QUIT
COUNT(W) ; counts a move to a ward
 LOCK +^WARD(W) SET ^WARD(W,"moves")=$GET(^WARD(W,"moves"))+1 LOCK -^WARD(W) QUIT
