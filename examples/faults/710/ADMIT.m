ADMIT(ID,W) ; notes the ward of a patient
 LOCK +^PAT(ID)
 SET ^PAT(ID,"ward")=W
 LOCK -^PAT(ID)
 QUIT
