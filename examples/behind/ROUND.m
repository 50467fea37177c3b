ROUND(ID,W) ; notes a patient's round, and counts it in the ward
 SET ^PAT(ID,"round")=$HOROLOG
 SET ^PAT(ID,"rounds")=$GET(^PAT(ID,"rounds"))+1
 SET ^WARD(W,"rounds")=$GET(^WARD(W,"rounds"))+1
 QUIT
