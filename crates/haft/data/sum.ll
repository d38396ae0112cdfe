declare void @haft_out(i64)
define i32 @main() {
  %a = add i64 2, 3
  call void @haft_out(i64 %a)
  ret i32 0
}
