WSCFG ; configuration, which is loaded and never written here
 ; ^WCFG("rate",kind)=price of an hour, ^WCFG("open")=hours, ^WCFG("tax")=percent
 QUIT
RATE(KIND) ; the price of an hour
 QUIT +$GET(^WCFG("rate",KIND),60)
 ;
TAX() ; percent
 QUIT +$GET(^WCFG("tax"),19)
 ;
OPEN(DAY) ; whether the workshop is open on a day
 QUIT $EXTRACT($GET(^WCFG("open"),"1111100"),DAY#7+1)
