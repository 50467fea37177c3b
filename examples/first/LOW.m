LOW(MIN) ; lists the items of which fewer than MIN pieces are left
 N I S I=""
NEXT S I=$O(^STK(I)) I I="" Q
 I ^STK(I)<MIN W !,I
 G NEXT
