; In a packed structure the second field stands right behind the first.
define i32 @f() {
  %s = alloca <{ i8, i32 }>, align 1
  %b = getelementptr inbounds <{ i8, i32 }>, ptr %s, i64 0, i32 1
  store i32 305419896, ptr %b, align 1
  %third = getelementptr inbounds i8, ptr %s, i64 3
  %byte = load i8, ptr %third, align 1
  %wide = zext i8 %byte to i32
  ret i32 %wide
}
