define void @scale(ptr %from, ptr %to) {
  %x = load i32, ptr %from
  %next = getelementptr i8, ptr %from, i64 4
  %y = load i32, ptr %next, align 4
  %sum = add i32 %x, %y
  %less = add i32 %sum, 4294967295
  store i32 %less, ptr %to, align 4
  ret void
}
