; ModuleID = 'timer.c'
source_filename = "timer.c"
target datalayout = "e-m:e-p270:32:32-p271:32:32-p272:64:64-i64:64-f80:128-n8:16:32:64-S128"
target triple = "x86_64-pc-linux-gnu"

%struct.cue = type { i8, i64, i32 }

; Function Attrs: nofree noinline norecurse nosync nounwind readonly uwtable
define dso_local i32 @next_cue(%struct.cue* nocapture noundef readonly %cues, i32 noundef %count, i64 noundef %now) local_unnamed_addr #0 {
entry:
  %cmp10 = icmp sgt i32 %count, 0
  br i1 %cmp10, label %for.body.preheader, label %cleanup

for.body.preheader:                               ; preds = %entry
  %wide.trip.count = zext i32 %count to i64
  br label %for.body

for.body:                                         ; preds = %for.body.preheader, %for.inc
  %indvars.iv = phi i64 [ 0, %for.body.preheader ], [ %indvars.iv.next, %for.inc ]
  %held = getelementptr inbounds %struct.cue, %struct.cue* %cues, i64 %indvars.iv, i32 0
  %0 = load i8, i8* %held, align 8, !tbaa !5
  %tobool.not = icmp eq i8 %0, 0
  br i1 %tobool.not, label %land.lhs.true, label %for.inc

land.lhs.true:                                    ; preds = %for.body
  %at = getelementptr inbounds %struct.cue, %struct.cue* %cues, i64 %indvars.iv, i32 1
  %1 = load i64, i64* %at, align 8, !tbaa !11
  %cmp3 = icmp sgt i64 %1, %now
  br i1 %cmp3, label %cleanup.loopexit.split.loop.exit, label %for.inc

for.inc:                                          ; preds = %for.body, %land.lhs.true
  %indvars.iv.next = add nuw nsw i64 %indvars.iv, 1
  %exitcond.not = icmp eq i64 %indvars.iv.next, %wide.trip.count
  br i1 %exitcond.not, label %cleanup, label %for.body, !llvm.loop !12

cleanup.loopexit.split.loop.exit:                 ; preds = %land.lhs.true
  %2 = trunc i64 %indvars.iv to i32
  br label %cleanup

cleanup:                                          ; preds = %cleanup.loopexit.split.loop.exit, %for.inc, %entry
  %spec.select = phi i32 [ -1, %entry ], [ %2, %cleanup.loopexit.split.loop.exit ], [ -1, %for.inc ]
  ret i32 %spec.select
}

; Function Attrs: nofree noinline norecurse nosync nounwind readonly uwtable
define dso_local i64 @remaining(%struct.cue* nocapture noundef readonly %cues, i32 noundef %count, i64 noundef %now) local_unnamed_addr #0 {
entry:
  %call = call i32 @next_cue(%struct.cue* noundef %cues, i32 noundef %count, i64 noundef %now)
  %cmp = icmp slt i32 %call, 0
  br i1 %cmp, label %cond.end, label %cond.false

cond.false:                                       ; preds = %entry
  %idxprom = sext i32 %call to i64
  %at = getelementptr inbounds %struct.cue, %struct.cue* %cues, i64 %idxprom, i32 1
  %0 = load i64, i64* %at, align 8, !tbaa !11
  %sub = sub nsw i64 %0, %now
  br label %cond.end

cond.end:                                         ; preds = %entry, %cond.false
  %cond = phi i64 [ %sub, %cond.false ], [ -1, %entry ]
  ret i64 %cond
}

; Function Attrs: mustprogress nofree noinline norecurse nosync nounwind uwtable willreturn writeonly
define dso_local void @put_two(i8* nocapture noundef writeonly %out, i32 noundef %number) local_unnamed_addr #1 {
entry:
  %div = udiv i32 %number, 10
  %0 = trunc i32 %div to i8
  %conv = add i8 %0, 48
  store i8 %conv, i8* %out, align 1, !tbaa !14
  %rem = urem i32 %number, 10
  %1 = trunc i32 %rem to i8
  %conv2 = or i8 %1, 48
  %arrayidx3 = getelementptr inbounds i8, i8* %out, i64 1
  store i8 %conv2, i8* %arrayidx3, align 1, !tbaa !14
  ret void
}

; Function Attrs: mustprogress nofree noinline norecurse nosync nounwind uwtable willreturn writeonly
define dso_local void @put_remaining(i8* nocapture noundef writeonly %out, i64 noundef %left) local_unnamed_addr #1 {
entry:
  %arrayidx = getelementptr inbounds i8, i8* %out, i64 2
  store i8 58, i8* %arrayidx, align 1, !tbaa !14
  %0 = icmp ugt i64 %left, 5999000
  br i1 %0, label %if.then, label %if.end

if.then:                                          ; preds = %entry
  %arrayidx2 = getelementptr inbounds i8, i8* %out, i64 4
  store i8 45, i8* %arrayidx2, align 1, !tbaa !14
  %arrayidx3 = getelementptr inbounds i8, i8* %out, i64 3
  store i8 45, i8* %arrayidx3, align 1, !tbaa !14
  %arrayidx4 = getelementptr inbounds i8, i8* %out, i64 1
  store i8 45, i8* %arrayidx4, align 1, !tbaa !14
  store i8 45, i8* %out, align 1, !tbaa !14
  br label %cleanup

if.end:                                           ; preds = %entry
  %add = add nsw i64 %left, 999
  %div = sdiv i64 %add, 1000
  %div6 = sdiv i64 %add, 60000
  %conv = trunc i64 %div6 to i32
  call void @put_two(i8* noundef %out, i32 noundef %conv)
  %add.ptr = getelementptr inbounds i8, i8* %out, i64 3
  %rem = srem i64 %div, 60
  %conv7 = trunc i64 %rem to i32
  call void @put_two(i8* noundef nonnull %add.ptr, i32 noundef %conv7)
  br label %cleanup

cleanup:                                          ; preds = %if.end, %if.then
  ret void
}

attributes #0 = { nofree noinline norecurse nosync nounwind readonly uwtable "frame-pointer"="none" "min-legal-vector-width"="0" "no-trapping-math"="true" "stack-protector-buffer-size"="8" "target-cpu"="x86-64" "target-features"="+cx8,+fxsr,+mmx,+sse,+sse2,+x87" "tune-cpu"="generic" }
attributes #1 = { mustprogress nofree noinline norecurse nosync nounwind uwtable willreturn writeonly "frame-pointer"="none" "min-legal-vector-width"="0" "no-trapping-math"="true" "stack-protector-buffer-size"="8" "target-cpu"="x86-64" "target-features"="+cx8,+fxsr,+mmx,+sse,+sse2,+x87" "tune-cpu"="generic" }

!llvm.module.flags = !{!0, !1, !2, !3}
!llvm.ident = !{!4}

!0 = !{i32 1, !"wchar_size", i32 4}
!1 = !{i32 7, !"PIC Level", i32 2}
!2 = !{i32 7, !"PIE Level", i32 2}
!3 = !{i32 7, !"uwtable", i32 1}
!4 = !{!"Debian clang version 14.0.6"}
!5 = !{!6, !7, i64 0}
!6 = !{!"cue", !7, i64 0, !9, i64 8, !10, i64 16}
!7 = !{!"omnipotent char", !8, i64 0}
!8 = !{!"Simple C/C++ TBAA"}
!9 = !{!"long", !7, i64 0}
!10 = !{!"int", !7, i64 0}
!11 = !{!6, !9, i64 8}
!12 = distinct !{!12, !13}
!13 = !{!"llvm.loop.unroll.disable"}
!14 = !{!7, !7, i64 0}
