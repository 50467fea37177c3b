MOVE(ID,W) ; notes a patient's ward: locks are names in a table, apart from the data
 LOCK +^LOCK("PAT",ID):5 ELSE  QUIT 0
 LOCK +^LOCK("WARD",W):5 ELSE  LOCK -^LOCK("PAT",ID) QUIT 0
 SET ^PAT(ID,"ward")=W,^WARD(W,"in",ID)=""
 LOCK -^LOCK("WARD",W),-^LOCK("PAT",ID) QUIT 1
