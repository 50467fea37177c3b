NOTE(ID,TEXT) ; one more note of a patient, with the day and the process that wrote it
	NEW N,DAY
	SET DAY=$ZDATE($HOROLOG)
	LOCK +^NOTE(ID)
	SET N=$GET(^NOTE(ID))+1
	IF N<=99 SET ^NOTE(ID)=N,^NOTE(ID,N)=DAY_" "_$ZIO_" "_TEXT
	LOCK -^NOTE(ID)
	QUIT
