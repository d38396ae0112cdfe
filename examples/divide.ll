define i32 @main() {
  %zero = sub i64 3, 3
  %a = udiv i64 1, %zero
  ret i32 0
}
