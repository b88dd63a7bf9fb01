; A loop that stores two numbers a round.
define void @pairs(ptr noalias %r, i64 %n) {
entry:
  br label %loop

loop:
  %i = phi i64 [ 0, %entry ], [ %next, %loop ]
  %p = getelementptr inbounds i16, ptr %r, i64 %i
  store i16 5, ptr %p, align 2
  %j = or disjoint i64 %i, 1
  %q = getelementptr inbounds i16, ptr %r, i64 %j
  store i16 6, ptr %q, align 2
  %next = add nuw nsw i64 %i, 2
  %done = icmp eq i64 %next, %n
  br i1 %done, label %end, label %loop

end:
  ret void
}
