declare void @haft_out(i64)
define i32 @main() {
  call void @haft_out(i64 12)
  %square = mul i64 12, 12
  %less = sub i64 %square, 100
  call void @haft_out(i64 %square)
  call void @haft_out(i64 %less)
  ret i32 7
}
