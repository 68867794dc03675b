; What the module names beyond WebAssembly, written out. It is put after the module's own text.

; pshufb of x86-64: bytes of a, chosen by the low four bits of each index, or 0 where the index has its highest bit set.
define internal <16 x i8> @shuffle_bytes(<16 x i8> %a, <16 x i8> %i) {
entry:
  %pa = alloca <16 x i8>, align 16
  %pi = alloca <16 x i8>, align 16
  %pr = alloca <16 x i8>, align 16
  store <16 x i8> %a, ptr %pa
  store <16 x i8> %i, ptr %pi
  br label %loop
loop:
  %k = phi i64 [ 0, %entry ], [ %k1, %loop ]
  %ip = getelementptr i8, ptr %pi, i64 %k
  %iv = load i8, ptr %ip
  %high = icmp slt i8 %iv, 0
  %low = and i8 %iv, 15
  %ix = zext i8 %low to i64
  %ap = getelementptr i8, ptr %pa, i64 %ix
  %av = load i8, ptr %ap
  %v = select i1 %high, i8 0, i8 %av
  %rp = getelementptr i8, ptr %pr, i64 %k
  store i8 %v, ptr %rp
  %k1 = add i64 %k, 1
  %done = icmp eq i64 %k1, 16
  br i1 %done, label %out, label %loop
out:
  %r = load <16 x i8>, ptr %pr
  ret <16 x i8> %r
}

; The heap of the kit by that of heap.c: a pair of 1 and the address, or of 0 and any address.
declare ptr @malloc(i64)
declare ptr @realloc(ptr, i64)
declare void @free(ptr)
define internal { i64, i64 } @rattle_alloc(i64 noundef %n, i64 noundef %a) alwaysinline nounwind {
 %z = icmp eq i64 %n, 0
 %s = select i1 %z, i64 %a, i64 %n
 %p = call ptr @malloc(i64 %s)
 %r = call { i64, i64 } @rattle_tried(ptr %p)
 ret { i64, i64 } %r }
define internal { i64, i64 } @rattle_realloc(ptr noundef %o, i64 noundef %kept, i64 noundef %n, i64 noundef %a) alwaysinline nounwind {
 %z = icmp eq i64 %n, 0
 %s = select i1 %z, i64 %a, i64 %n
 %p = call ptr @realloc(ptr %o, i64 %s)
 %r = call { i64, i64 } @rattle_tried(ptr %p)
 ret { i64, i64 } %r }
define internal { i64, i64 } @rattle_tried(ptr %p) alwaysinline nounwind {
 %nz = icmp ne ptr %p, null
 %ok = zext i1 %nz to i64
 %q = select i1 %nz, ptr %p, ptr inttoptr (i64 16 to ptr)
 %i = ptrtoint ptr %q to i64
 %r0 = insertvalue { i64, i64 } undef, i64 %ok, 0
 %r1 = insertvalue { i64, i64 } %r0, i64 %i, 1
 ret { i64, i64 } %r1 }
define internal void @rattle_dealloc(ptr noundef %p) alwaysinline nounwind { call void @free(ptr %p)
 ret void }
