FREE(ID) ; frees a patient's bed
 LOCK +^PAT(ID)
 KILL ^PAT(ID,"bed")
 LOCK -^PAT(ID)
BED(ID) ; a patient's bed; whoever calls holds the patient
 QUIT $GET(^PAT(ID,"bed"))
