BEDS(W) ; copies a ward's beds to the job's work space
 KILL ^TMP
 LOCK +^WARD(W) MERGE ^TMP($JOB)=^WARD(W,"bed") LOCK -^WARD(W)
 QUIT
