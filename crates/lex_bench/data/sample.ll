; two globals, a function
@zero = global i32 0, align 4
@text = constant [4 x i8] c"\5A\\\q"
declare void @haft_out(i64)
define i32 @main() #0 {
entry:
  %a = add nsw i64 2, -3 ; a sum
  call void @haft_out(i64 %a)

  ret i32 0, !dbg !7
}
