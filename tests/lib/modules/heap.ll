declare [2 x i64] @rattle_alloc(i64 noundef, i64 noundef) #2
declare [2 x i64] @rattle_realloc(ptr noundef, i64 noundef, i64 noundef, i64 noundef) #2
declare void @rattle_dealloc(ptr noundef) #2

attributes #2 = { nobuiltin nounwind }

define internal void @"libc::heap::rattle_alloc"(ptr noundef %a0, ptr noundef %a1, i64 noundef %a2, i64 noundef %a3) #0 {
start:
  %r0 = call [2 x i64] @rattle_alloc(i64 %a2, i64 %a3)
  store [2 x i64] %r0, ptr %a0, align 8
  ret void
}

define internal void @"libc::heap::rattle_realloc"(ptr noundef %a0, ptr noundef %a1, ptr noundef %a2, i64 noundef %a3, i64 noundef %a4, i64 noundef %a5) #0 {
start:
  %r0 = call [2 x i64] @rattle_realloc(ptr %a2, i64 %a3, i64 %a4, i64 %a5)
  store [2 x i64] %r0, ptr %a0, align 8
  ret void
}

define internal void @"libc::heap::rattle_dealloc"(ptr noundef %a0, ptr noundef %a1) #0 {
start:
  call void @rattle_dealloc(ptr %a1)
  ret void
}

; Where the block of an answer is, if there is one, and what is written there; 0 if there is none.
define internal i64 @"heap::told"(ptr noundef %a0, ptr noundef %a1) #0 {
start:
  %r0 = load i64, ptr %a1, align 8
  %r1 = getelementptr i8, ptr %a1, i64 8
  %r2 = load ptr, ptr %r1, align 8
  %r3 = ptrtoaddr ptr %r2 to i64
  %r4 = mul i64 %r0, %r3
  store i64 %r4, ptr %a0, align 8
  ret i64 %r0
}

; The first block, of 5 bytes; the second, of 8; the first of 20 bytes, which moves; it once more, of other length, where it is; and, once
; that is given back, a block of one byte.
define noundef i32 @dfu_heap_try(ptr noundef %a0, i64 noundef %a1) #0 {
start:
  %r0 = alloca [16 x i8], align 8
  %r1 = alloca [8 x i8], align 8
  %r2 = getelementptr i8, ptr %r0, i64 8
  call void @"libc::heap::rattle_alloc"(ptr %r0, ptr %r1, i64 5, i64 1)
  %r3 = call i64 @"heap::told"(ptr %a0, ptr %r0)
  %r4 = icmp eq i64 %r3, 0
  br i1 %r4, label %none.1, label %first.1

first.1:
  %r5 = load ptr, ptr %r2, align 8
  call void @llvm.memset.p0.i64(ptr %r5, i8 65, i64 5, i1 false)
  %r6 = getelementptr i8, ptr %a0, i64 8
  call void @"libc::heap::rattle_alloc"(ptr %r0, ptr %r1, i64 8, i64 8)
  %r7 = call i64 @"heap::told"(ptr %r6, ptr %r0)
  %r8 = icmp eq i64 %r7, 0
  br i1 %r8, label %none.1, label %second.1

second.1:
  %r9 = load ptr, ptr %r2, align 8
  call void @llvm.memset.p0.i64(ptr %r9, i8 66, i64 8, i1 false)
  %r10 = getelementptr i8, ptr %a0, i64 16
  call void @"libc::heap::rattle_realloc"(ptr %r0, ptr %r1, ptr %r5, i64 5, i64 20, i64 1)
  %r11 = call i64 @"heap::told"(ptr %r10, ptr %r0)
  %r12 = icmp eq i64 %r11, 0
  br i1 %r12, label %none.1, label %moved.1

moved.1:
  %r13 = load ptr, ptr %r2, align 8
  %r14 = getelementptr i8, ptr %r13, i64 5
  call void @llvm.memset.p0.i64(ptr %r14, i8 67, i64 15, i1 false)
  %r15 = getelementptr i8, ptr %a0, i64 24
  call void @"libc::heap::rattle_realloc"(ptr %r0, ptr %r1, ptr %r13, i64 20, i64 %a1, i64 1)
  %r16 = call i64 @"heap::told"(ptr %r15, ptr %r0)
  %r17 = icmp eq i64 %r16, 0
  br i1 %r17, label %none.1, label %grown.1

grown.1:
  %r18 = load ptr, ptr %r2, align 8
  call void @"libc::heap::rattle_dealloc"(ptr %r1, ptr %r18)
  %r19 = getelementptr i8, ptr %a0, i64 32
  call void @"libc::heap::rattle_alloc"(ptr %r0, ptr %r1, i64 1, i64 1)
  %r20 = call i64 @"heap::told"(ptr %r19, ptr %r0)
  %r21 = icmp eq i64 %r20, 0
  br i1 %r21, label %none.1, label %all.1

all.1:
  ret i32 1

none.1:
  ret i32 0
}

; An export that takes no memory stays as it is.
define noundef i32 @dfu_heap_none(i32 noundef %a0) #0 {
start:
  %r0 = add i32 %a0, 1
  ret i32 %r0
}
