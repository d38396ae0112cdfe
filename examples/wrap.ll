declare void @haft_out(i64)
define i32 @main() {
  %big = sub i64 0, 1
  call void @haft_out(i64 %big)
  %next = add i64 %big, 3
  call void @haft_out(i64 %next)
  ret i32 0
}
