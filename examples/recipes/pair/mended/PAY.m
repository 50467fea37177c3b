PAY(FROM,TO,SUM) ; both in one claim, so their order doesn't matter
 LOCK +(^ACCT(FROM),^ACCT(TO)):10 ELSE  QUIT 0
 SET ^ACCT(FROM)=^ACCT(FROM)-SUM,^ACCT(TO)=^ACCT(TO)+SUM
 LOCK -(^ACCT(FROM),^ACCT(TO)) QUIT 1
