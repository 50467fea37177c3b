SEEN(ID,WHO) ; notes who has seen a patient
 LOCK +^PAT(ID)
 SET ^VISIT(ID,$HOROLOG)=WHO
 LOCK -^PAT(ID) QUIT
