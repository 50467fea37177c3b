OUT(ID) ; discharges a patient
 LOCK +^PAT(ID) KILL ^PAT(ID,"bed") LOCK -^PAT(ID)
 DO NOTE(ID,"discharged") QUIT
NOTE(ID,TEXT) ; adds a note; whoever calls holds the patient
 SET ^PAT(ID,"note",$HOROLOG)=TEXT QUIT
