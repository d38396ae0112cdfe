; The smaller of two numbers, by way of a byte.
source_filename = "pick.c"

declare void @haft_out(i64 noundef) #1

define dso_local i32 @main() #0 {
entry:
  %less = icmp slt i64 -5, 3
  %least = select i1 %less, i64 -5, i64 3
  %byte = trunc i64 %least to i8 ; 251
  %wide = sext i8 %byte to i64
  call void @haft_out(i64 noundef %wide)
  ret i32 0
}

attributes #0 = { nounwind }
