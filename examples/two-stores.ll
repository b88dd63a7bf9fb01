define void @pair(ptr %p) {
  %q = getelementptr i8, ptr %p, i64 4
  store i32 7, ptr %p, align 4
  store i32 8, ptr %q, align 4
  ret void
}
