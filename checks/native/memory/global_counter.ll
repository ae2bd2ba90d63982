@count = global i32 40, align 4
define void @step() {
  %a = load i32, ptr @count, align 4
  %b = add i32 %a, 1
  store i32 %b, ptr @count, align 4
  ret void
}
define i32 @f() {
  call void @step()
  call void @step()
  %a = load i32, ptr @count, align 4
  ret i32 %a
}
