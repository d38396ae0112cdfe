; Three threads add their arguments, 2, 3 and 4, to a sum. They do so one at a time, under a lock; without it one could load the sum
; before another has stored it, which is a race. Then each adds 2 to a count by an atomic update, which needs no lock.
; `main` waits until all have ended, so that its loads race with nothing. Whatever the schedule, it gives out 9 and 6.
@lock = global i64 0
@sum = global i64 0
@count = global i64 0
@t1 = global i64 0
@t2 = global i64 0
@t3 = global i64 0

declare i32 @pthread_create(ptr, ptr, ptr, ptr)
declare i32 @pthread_join(i64, ptr)
declare i32 @pthread_mutex_lock(ptr)
declare i32 @pthread_mutex_unlock(ptr)
declare void @haft_out(i64)

define ptr @work(ptr %x) {
  %n = ptrtoint ptr %x to i64
  %l = call i32 @pthread_mutex_lock(ptr @lock)
  %old = load i64, ptr @sum
  %new = add i64 %old, %n
  ; Hardened, a check compares both copies of %new before they leave the registers.
  store i64 %new, ptr @sum
  %u = call i32 @pthread_mutex_unlock(ptr @lock)
  %c = atomicrmw add ptr @count, i64 2 seq_cst
  ret ptr null
}

define i32 @main() {
  %a = inttoptr i64 2 to ptr
  %b = inttoptr i64 3 to ptr
  %c = inttoptr i64 4 to ptr
  ; The number of each thread is stored where its call says.
  %r1 = call i32 @pthread_create(ptr @t1, ptr null, ptr @work, ptr %a)
  %r2 = call i32 @pthread_create(ptr @t2, ptr null, ptr @work, ptr %b)
  %r3 = call i32 @pthread_create(ptr @t3, ptr null, ptr @work, ptr %c)
  %n1 = load i64, ptr @t1
  %j1 = call i32 @pthread_join(i64 %n1, ptr null)
  %n2 = load i64, ptr @t2
  %j2 = call i32 @pthread_join(i64 %n2, ptr null)
  %n3 = load i64, ptr @t3
  %j3 = call i32 @pthread_join(i64 %n3, ptr null)
  %sum = load i64, ptr @sum
  %count = load i64, ptr @count
  call void @haft_out(i64 %sum)
  call void @haft_out(i64 %count)
  ret i32 0
}
