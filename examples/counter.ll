; Two threads count to three each, under a lock. Whatever the turns are, no two accesses race, and where the program comes to its end
; it has given out 6.
@lock = global i64 0
@count = global i64 0
@first = global i64 0
@second = global i64 0

declare i32 @pthread_create(ptr, ptr, ptr, ptr)
declare i32 @pthread_join(i64, ptr)
declare i32 @pthread_mutex_lock(ptr)
declare i32 @pthread_mutex_unlock(ptr)
declare void @haft_out(i64)

define ptr @work(ptr %unused) {
entry:
  br label %round
round:
  %done = phi i64 [ 0, %entry ], [ %next, %round ]
  %l = call i32 @pthread_mutex_lock(ptr @lock)
  %old = load i64, ptr @count
  %new = add i64 %old, 1
  store i64 %new, ptr @count
  %u = call i32 @pthread_mutex_unlock(ptr @lock)
  %next = add i64 %done, 1
  %more = icmp ult i64 %next, 3
  br i1 %more, label %round, label %end
end:
  ret ptr null
}

define i32 @main() {
  %a = call i32 @pthread_create(ptr @first, ptr null, ptr @work, ptr null)
  %b = call i32 @pthread_create(ptr @second, ptr null, ptr @work, ptr null)
  %t = load i64, ptr @first
  %c = call i32 @pthread_join(i64 %t, ptr null)
  %s = load i64, ptr @second
  %d = call i32 @pthread_join(i64 %s, ptr null)
  %sum = load i64, ptr @count
  call void @haft_out(i64 %sum)
  ret i32 0
}
