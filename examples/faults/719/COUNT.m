ADMIT(ID,W) ; notes a patient's ward, and counts the admission
 LOCK +^PAT(ID) SET ^PAT(ID,"ward")=W
 DO COUNT(W) LOCK -^PAT(ID) QUIT
COUNT(W) ; counts an admission to a ward
 LOCK +^WARD(W) SET ^WARD(W,"in")=$GET(^WARD(W,"in"))+1 LOCK  QUIT
