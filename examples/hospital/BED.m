FREE(W) ; the first free bed of a ward, or nothing; whoever calls holds the ward
 NEW B
 SET B=""
 FOR  SET B=$ORDER(^WARD(W,"beds",B)) QUIT:B=""  QUIT:'$DATA(^WARD(W,"bed",B))
 QUIT B
